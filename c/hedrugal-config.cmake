# For find_package(hedrugal). A program links hedrugal::hedrugal, the shared library, or hedrugal::static, the archive. One on a terminal also links
# hedrugal::terminal, which compiles hedrugal_terminal.c with it. The lines with set( are for a folder that has all the files; make install writes
# those of the usual folders in their place.
get_filename_component(_hedrugal_here "${CMAKE_CURRENT_LIST_DIR}" REALPATH)
set(_hedrugal_prefix "${_hedrugal_here}")
set(_hedrugal_include "${_hedrugal_prefix}")
set(_hedrugal_lib "${_hedrugal_prefix}")
set(_hedrugal_terminal "${_hedrugal_prefix}/hedrugal_terminal.c")

if(NOT TARGET hedrugal::hedrugal)
  add_library(hedrugal::hedrugal SHARED IMPORTED)
  add_library(hedrugal::static STATIC IMPORTED)
  add_library(hedrugal::terminal INTERFACE IMPORTED)
  set_target_properties(hedrugal::hedrugal PROPERTIES IMPORTED_LOCATION "${_hedrugal_lib}/libhedrugal.so")
  set_target_properties(hedrugal::static PROPERTIES IMPORTED_LOCATION "${_hedrugal_lib}/libhedrugal.a")
  set_target_properties(hedrugal::terminal PROPERTIES INTERFACE_SOURCES "${_hedrugal_terminal}")
  set_target_properties(hedrugal::hedrugal hedrugal::static hedrugal::terminal
    PROPERTIES INTERFACE_INCLUDE_DIRECTORIES "${_hedrugal_include}")
endif()
