"""Tries the edits of a crate in rounds: edits of functions that do not call one another in one check of these functions alone."""
from concurrent.futures import ThreadPoolExecutor

import edits
import names
import renames
import room
import source
import told
from told import Told


class Trial:
    """The edits of one crate, tried over links of what its checks kept. Nothing is written in its folder."""

    def __init__(self, kit, crate, lanes):
        self.kit, self.crate, self.lanes = kit, crate, lanes
        known = names.known_names(crate)
        self.path_of = lambda function: names.path_of(function, known)
        self.functions = edits.functions_of_crate(crate.folder)
        self.every = [it for them in self.functions.values() for it in them]
        # The seconds of processor time that each check took.
        self.reach, self.spent = {}, []

    def reach_of(self, function):
        """The functions that one may call."""
        if function not in self.reach:
            self.reach[function] = source.reach_of(function, self.every)
        return self.reach[function]

    def are_near(self, one, other):
        """True if one of two functions may call the other, or both are the same."""
        return one is other or other in self.reach_of(one) or one in self.reach_of(other)

    def rounds_of(self, placed):
        """The edits in rounds, as many as can be tried at once or as have to be: each joins the shortest in which it can be told apart."""
        rounds = []
        for edit in placed:
            fits = [it for it in rounds if self.may_join(edit, it)]
            if fits and (len(rounds) >= self.lanes):
                min(fits, key=len).append(edit)
            else:
                rounds.append([edit])
        return rounds

    def may_join(self, edit, others):
        """True if an edit is told apart from others in one check: no function may call another, and each old text occurs once with all the edits."""
        if any(self.are_near(edit.function, it.function) for it in others):
            return False
        try:
            self.applied([*others, edit])
        except edits.Unfit:
            return False
        return True

    def applied(self, several):
        """The texts with several edits."""
        texts = {}
        for it in several:
            texts = it.applied(texts, self.crate.folder)
        return texts

    def check(self, texts, only):
        """Checks these functions with these texts, or the whole crate where none is named, and returns the status and what was said."""
        with room.copy_of(self.crate, texts) as folder:
            # What the kit guards ends with this process, however that ends.
            words = [*self.kit.guarded(), self.kit.RATTLE, "check", *self.crate.words(["--jobs", "1"], keeps=False)]
            words += ["--incremental", f"{folder}/kept"]
            for path in only:
                words += ["--only", path.replace(".", "::")]
            status, said, seconds = room.run(words, folder)
        self.spent.append(seconds)
        return status, said

    def whole(self, edit):
        """Tries one edit by a check of the whole crate."""
        texts = self.applied([edit])
        status, said = self.check(texts, [])
        if status == 0:
            return Told(told.PROVED, "the whole crate is proved with it")
        if not told.is_read(said):
            return told.unread(status, said)
        own = told.verdict(said, self.crate.name, edit, texts) if edit.function else told.verdict_of_all(said)
        if own.kind in (told.PROVED, told.AGAIN):
            return Told(told.ELSEWHERE, f"its own function is not shown wrong; {told.verdict_of_all(said).why}")
        return own

    def by_functions(self, placed):
        """Tries edits by one check of their functions, and returns what became of each."""
        texts = self.applied(placed)
        status, said = self.check(texts, [it.path for it in placed])
        if told.is_read(said):
            return [told.verdict(said, self.crate.name, it, texts) for it in placed]
        # Which of several is not read is not known.
        return [told.unread(status, said) if len(placed) == 1 else Told(told.AGAIN, "") for _ in placed]

    def renamed(self, edit, found):
        """What becomes of an edit that is refused for its names alone, once its function's proof is read in its names."""
        texts = renames.in_its_names(edit, found, self.crate.folder)
        if not texts:
            return found
        _, said = self.check(texts, [edit.path])
        again = told.verdict(said, self.crate.name, edit, texts)
        if again.kind == told.PROVED:
            return Told(told.RENAMES, "its function is proved once its proof has the edit's names")
        return again if again.kind == told.REFUSED else found

    def try_round(self, placed):
        """Tries edits by one check, and alone those that it leaves undecided."""
        for edit, found in zip(placed, self.by_functions(placed)):
            if found.kind == told.AGAIN and len(placed) > 1:
                found = self.by_functions([edit])[0]
            if found.kind == told.NAMES:
                found = self.renamed(edit, found)
            if found.kind in (told.PROVED, told.AGAIN):
                found = self.whole(edit)
            yield edit, found

    def sorted_out(self, several):
        """Those edits that change one body each, those that may concern more, and those that cannot be applied, each with why."""
        placed, others, unfit = [], [], []
        for edit in several:
            try:
                self.applied([edit])
                edit.place(self.crate.folder, self.functions, self.path_of)
                (placed if edit.function else others).append(edit)
            except edits.Unfit as why:
                unfit.append((edit, Told(told.UNREAD, str(why))))
        return placed, others, unfit

    def go(self, several, tell):
        """Tries all edits, rounds side by side, reports each as it is known, and returns what became of them by their files."""
        placed, others, known = self.sorted_out(several)
        results = {}

        def note(edit, found):
            results[edit.file] = found
            tell(edit, found)

        def work(task):
            for edit, found in task():
                note(edit, found)

        for edit, found in known:
            note(edit, found)
        tasks = [lambda it=it: self.try_round(it) for it in self.rounds_of(placed)]
        tasks += [lambda it=it: [(it, self.whole(it))] for it in others]
        with ThreadPoolExecutor(self.lanes) as pool:
            for it in [pool.submit(work, task) for task in tasks]:
                it.result()
        return results
