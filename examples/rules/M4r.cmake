# Rules for CMake. `include(M4r.cmake)`, and then:
#
#     m4r_freeze(base.m4f base.m4)
#     m4r_freeze(project.m4f project.m4 BASE base.m4f)
#     m4r_expand(page.txt page.m4 LIBRARY project.m4f)
#     add_custom_target(pages ALL DEPENDS page.txt)
#
# What is made is in the build folder, what is read in the source folder.
set(M4R m4r CACHE STRING "the program m4r")

# FROZEN is LIBRARY frozen, perhaps on a base that is frozen itself.
function(m4r_freeze FROZEN LIBRARY)
  cmake_parse_arguments(PARSE_ARGV 2 IT "" "BASE" "")
  if(IT_BASE)
    set(base -R ${IT_BASE})
  endif()
  add_custom_command(
    OUTPUT ${FROZEN}
    COMMAND ${M4R} ${base} -F ${FROZEN}.new ${CMAKE_CURRENT_SOURCE_DIR}/${LIBRARY}
    COMMAND ${CMAKE_COMMAND} -E rename ${FROZEN}.new ${FROZEN}
    DEPENDS ${LIBRARY} ${IT_BASE}
    VERBATIM)
endfunction()

# OUTPUT is PAGE, expanded from a frozen library.
function(m4r_expand OUTPUT PAGE)
  cmake_parse_arguments(PARSE_ARGV 2 IT "" "LIBRARY" "")
  add_custom_command(
    OUTPUT ${OUTPUT}
    COMMAND ${M4R} -R ${IT_LIBRARY} ${CMAKE_CURRENT_SOURCE_DIR}/${PAGE} > ${OUTPUT}.new
    COMMAND ${CMAKE_COMMAND} -E rename ${OUTPUT}.new ${OUTPUT}
    DEPENDS ${PAGE} ${IT_LIBRARY}
    VERBATIM)
endfunction()
