# What find_package(pbcnf) gives: pbcnf::pbcnf, the shared library, and pbcnf::static, the archive, both with the headers. They are found
# from where this file is, below the PREFIX of ./install, which may be moved as a whole.
get_filename_component(_pbcnf_prefix "${CMAKE_CURRENT_LIST_DIR}/../../.." ABSOLUTE)

if(NOT TARGET pbcnf::pbcnf)
  add_library(pbcnf::pbcnf SHARED IMPORTED)
  set_target_properties(pbcnf::pbcnf PROPERTIES
    IMPORTED_LOCATION "${_pbcnf_prefix}/lib/libpbcnf.so.0"
    IMPORTED_SONAME libpbcnf.so.0
    INTERFACE_INCLUDE_DIRECTORIES "${_pbcnf_prefix}/include")

  add_library(pbcnf::static STATIC IMPORTED)
  set_target_properties(pbcnf::static PROPERTIES
    IMPORTED_LOCATION "${_pbcnf_prefix}/lib/libpbcnf.a"
    INTERFACE_INCLUDE_DIRECTORIES "${_pbcnf_prefix}/include")
endif()

unset(_pbcnf_prefix)
