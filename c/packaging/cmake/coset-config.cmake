# Defines the targets coset::coset, the shared library, and coset::static.
# The folder may be reached through a link, as by /lib to /usr/lib, or by a link from the prefix to another disk.
get_filename_component(_coset_here "${CMAKE_CURRENT_LIST_DIR}" REALPATH)
get_filename_component(_coset_there "@PREFIX@/@LIBDIR@/cmake/coset" REALPATH)
if(_coset_here STREQUAL _coset_there)
  set(_coset_prefix "@PREFIX@")
else()
  # The installation was moved.
  get_filename_component(_coset_prefix "${_coset_here}/@UP@" ABSOLUTE)
endif()
if(NOT TARGET coset::coset)
  add_library(coset::coset SHARED IMPORTED)
  set_target_properties(coset::coset PROPERTIES
    IMPORTED_LOCATION "${_coset_prefix}/@LIBDIR@/@FILE@"
    IMPORTED_SONAME "@SONAME@"
    INTERFACE_INCLUDE_DIRECTORIES "${_coset_prefix}/include")
  add_library(coset::static STATIC IMPORTED)
  set_target_properties(coset::static PROPERTIES
    IMPORTED_LOCATION "${_coset_prefix}/@LIBDIR@/libcoset.a"
    INTERFACE_INCLUDE_DIRECTORIES "${_coset_prefix}/include")
endif()
set(coset_PROVED @PROVED@)
unset(_coset_here)
unset(_coset_there)
unset(_coset_prefix)
