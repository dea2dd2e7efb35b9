# The library libmvt for CMake: find_package(mvt @SERIES@ REQUIRED), and then
#     target_link_libraries(app PRIVATE mvt::mvt)           the shared library
#     target_link_libraries(app PRIVATE mvt::mvt_static)    the static one
find_path(mvt_INCLUDE_DIR mvt.h HINTS "${CMAKE_CURRENT_LIST_DIR}" "${CMAKE_CURRENT_LIST_DIR}/../../../include"
          "${CMAKE_CURRENT_LIST_DIR}/../../../../include" NO_DEFAULT_PATH)
foreach(kind SHARED STATIC)
  if(kind STREQUAL SHARED)
    set(_mvt_target mvt::mvt)
    set(_mvt_file @SHARED@)
  else()
    set(_mvt_target mvt::mvt_static)
    set(_mvt_file libmvt.a)
  endif()
  find_file(mvt_${kind}_LIBRARY ${_mvt_file} HINTS "${CMAKE_CURRENT_LIST_DIR}" "${CMAKE_CURRENT_LIST_DIR}/../.."
            NO_DEFAULT_PATH)
  if(mvt_INCLUDE_DIR AND mvt_${kind}_LIBRARY AND NOT TARGET ${_mvt_target})
    add_library(${_mvt_target} ${kind} IMPORTED)
    set_target_properties(${_mvt_target} PROPERTIES IMPORTED_LOCATION "${mvt_${kind}_LIBRARY}"
                          INTERFACE_INCLUDE_DIRECTORIES "${mvt_INCLUDE_DIR}")
    if(CMAKE_CXX_COMPILER_LOADED) # mvt.hpp
      set_target_properties(${_mvt_target} PROPERTIES INTERFACE_COMPILE_FEATURES cxx_std_20)
    endif()
  endif()
endforeach()
if(NOT TARGET mvt::mvt)
  set(mvt_FOUND FALSE)
  set(mvt_NOT_FOUND_MESSAGE "@SHARED@ or mvt.h isn't where this file looks for them")
endif()
