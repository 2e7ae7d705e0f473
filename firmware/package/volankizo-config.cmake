# The archive and the header beside which this file was installed, as the target volankizo::volankizo.
get_filename_component(volankizo_prefix "${CMAKE_CURRENT_LIST_DIR}/../../.." ABSOLUTE)
if(NOT TARGET volankizo::volankizo)
  add_library(volankizo::volankizo STATIC IMPORTED)
  set_target_properties(volankizo::volankizo PROPERTIES
    IMPORTED_LOCATION "${volankizo_prefix}/lib/libvolankizo.a"
    INTERFACE_INCLUDE_DIRECTORIES "${volankizo_prefix}/include")
endif()
