# Two targets: agc2::agc2 is the archive, agc2::shared the shared library.
# All paths start from this file's folder, so the installed tree may be moved; the real one, since a system's /lib may be a link to /usr/lib.
get_filename_component(agc2_folder "${CMAKE_CURRENT_LIST_DIR}" REALPATH)
get_filename_component(agc2_prefix "${agc2_folder}/../../.." ABSOLUTE)
if(NOT TARGET agc2::agc2)
  add_library(agc2::agc2 STATIC IMPORTED)
  set_target_properties(agc2::agc2 PROPERTIES IMPORTED_LOCATION "${agc2_prefix}/lib/libagc2.a" INTERFACE_INCLUDE_DIRECTORIES "${agc2_prefix}/include")
  add_library(agc2::shared SHARED IMPORTED)
  set_target_properties(agc2::shared PROPERTIES IMPORTED_LOCATION "${agc2_prefix}/lib/libagc2.so" INTERFACE_INCLUDE_DIRECTORIES "${agc2_prefix}/include")
endif()
unset(agc2_folder)
unset(agc2_prefix)
