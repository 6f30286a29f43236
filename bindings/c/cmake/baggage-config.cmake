# find_package(baggage 2) gives two targets: baggage::baggage, the shared library, and baggage::archive, the static one.
get_filename_component(baggage_libraries "${CMAKE_CURRENT_LIST_DIR}/../.." ABSOLUTE)
set(baggage_INCLUDE_DIR baggage_INCLUDE_DIR-NOTFOUND)
foreach(folder "${baggage_libraries}/../include" "${baggage_libraries}/../../include")
    if(NOT baggage_INCLUDE_DIR AND EXISTS "${folder}/baggage.h")
        get_filename_component(baggage_INCLUDE_DIR "${folder}" ABSOLUTE)
    endif()
endforeach()
if(NOT baggage_INCLUDE_DIR)
    set(baggage_FOUND FALSE)
    set(baggage_NOT_FOUND_MESSAGE "there is no baggage.h beside ${baggage_libraries}")
    return()
endif()
if(EXISTS "${baggage_libraries}/libbaggage.so.@VERSION@" AND NOT TARGET baggage::baggage)
    add_library(baggage::baggage SHARED IMPORTED)
    set_target_properties(baggage::baggage PROPERTIES
        IMPORTED_LOCATION "${baggage_libraries}/libbaggage.so.@VERSION@" IMPORTED_SONAME libbaggage.so.@MAJOR@
        INTERFACE_INCLUDE_DIRECTORIES "${baggage_INCLUDE_DIR}")
endif()
if(NOT TARGET baggage::archive)
    add_library(baggage::archive STATIC IMPORTED)
    set_target_properties(baggage::archive PROPERTIES
        IMPORTED_LOCATION "${baggage_libraries}/libbaggage.a" INTERFACE_INCLUDE_DIRECTORIES "${baggage_INCLUDE_DIR}")
endif()
