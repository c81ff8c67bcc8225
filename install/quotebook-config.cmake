# find_package(quotebook 1 REQUIRED)
# target_link_libraries(yours PRIVATE quotebook::quotebook)   the static library; quotebook::shared is the shared one
get_filename_component(_quotebook_prefix "${CMAKE_CURRENT_LIST_DIR}/../../.." ABSOLUTE)
if(NOT TARGET quotebook::quotebook)
  add_library(quotebook::quotebook STATIC IMPORTED)
  set_target_properties(quotebook::quotebook PROPERTIES
    IMPORTED_LOCATION "${_quotebook_prefix}/lib/libquotebook.a"
    INTERFACE_INCLUDE_DIRECTORIES "${_quotebook_prefix}/include")
  add_library(quotebook::shared SHARED IMPORTED)
  set_target_properties(quotebook::shared PROPERTIES
    IMPORTED_LOCATION "${_quotebook_prefix}/lib/libquotebook.so"
    INTERFACE_INCLUDE_DIRECTORIES "${_quotebook_prefix}/include")
endif()
