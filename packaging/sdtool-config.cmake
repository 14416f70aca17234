# find_package(sdtool) gives the targets sdtool::sdtool, the shared library, and sdtool::static. The folder of this file
# is below that of the libraries, so the tree can be moved.
get_filename_component(_sdtool_libraries "${CMAKE_CURRENT_LIST_DIR}/../.." ABSOLUTE)
get_filename_component(_sdtool_header "${_sdtool_libraries}/../include" ABSOLUTE)
# Debian has a folder more, of the kind of processor.
if(NOT EXISTS "${_sdtool_header}/sdtool.h")
    get_filename_component(_sdtool_header "${_sdtool_libraries}/../../include" ABSOLUTE)
endif()
if(NOT TARGET sdtool::sdtool)
    add_library(sdtool::sdtool SHARED IMPORTED)
    set_target_properties(sdtool::sdtool PROPERTIES
        IMPORTED_LOCATION "${_sdtool_libraries}/libsdtool.so" INTERFACE_INCLUDE_DIRECTORIES "${_sdtool_header}")
    add_library(sdtool::static STATIC IMPORTED)
    set_target_properties(sdtool::static PROPERTIES
        IMPORTED_LOCATION "${_sdtool_libraries}/libsdtool.a" INTERFACE_INCLUDE_DIRECTORIES "${_sdtool_header}")
endif()
