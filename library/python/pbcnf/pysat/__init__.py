"""The encoders of PySAT by their names, over the proved encoder: a program changes its imports, as `from pysat.card import CardEnc` to
`from pbcnf.pysat.card import CardEnc`. It needs no PySAT, and works beside it: pools of variables may be PySAT's, and its solvers
take the clauses."""

from pbcnf.pysat.card import CardEnc, EncType, ITotalizer
from pbcnf.pysat.formula import CNF, IDPool
from pbcnf.pysat.pb import PBEnc

__all__ = ["CNF", "CardEnc", "EncType", "IDPool", "ITotalizer", "PBEnc"]
