# The targets bulgefs::static and bulgefs::shared; bulgefs::bulgefs is the static one.
get_filename_component(_bulgefs_lib "${CMAKE_CURRENT_LIST_DIR}/../.." ABSOLUTE)
get_filename_component(_bulgefs_prefix "${_bulgefs_lib}/@UP@" ABSOLUTE)
if(NOT TARGET bulgefs::bulgefs)
  add_library(bulgefs::static STATIC IMPORTED)
  set_target_properties(bulgefs::static PROPERTIES
    IMPORTED_LOCATION "${_bulgefs_lib}/libbulgefs.a"
    INTERFACE_INCLUDE_DIRECTORIES "${_bulgefs_prefix}/include")
  add_library(bulgefs::shared SHARED IMPORTED)
  set_target_properties(bulgefs::shared PROPERTIES
    IMPORTED_LOCATION "${_bulgefs_lib}/libbulgefs.so"
    IMPORTED_SONAME "libbulgefs.so.@MAJOR@"
    INTERFACE_INCLUDE_DIRECTORIES "${_bulgefs_prefix}/include")
  add_library(bulgefs::bulgefs INTERFACE IMPORTED)
  set_target_properties(bulgefs::bulgefs PROPERTIES INTERFACE_LINK_LIBRARIES bulgefs::static)
endif()
unset(_bulgefs_lib)
unset(_bulgefs_prefix)
