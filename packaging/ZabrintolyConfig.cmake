# find_package(Zabrintoly) gives the target Zabrintoly::Zabrintoly. C++ needs C++20.
if(NOT CMAKE_SYSTEM_PROCESSOR MATCHES "^(x86_64|AMD64)$")
  set(Zabrintoly_NOT_FOUND_MESSAGE "its library is for x86-64 Linux, and this build is for ${CMAKE_SYSTEM_PROCESSOR}")
  set(Zabrintoly_FOUND FALSE)
  return()
endif()
if(NOT TARGET Zabrintoly::Zabrintoly)
  get_filename_component(zabrintoly_prefix "${CMAKE_CURRENT_LIST_DIR}/../../.." ABSOLUTE)
  add_library(Zabrintoly::Zabrintoly STATIC IMPORTED)
  set_target_properties(Zabrintoly::Zabrintoly PROPERTIES
    IMPORTED_LOCATION "${zabrintoly_prefix}/lib/libzabrintoly.a"
    INTERFACE_INCLUDE_DIRECTORIES "${zabrintoly_prefix}/include")
  unset(zabrintoly_prefix)
endif()
