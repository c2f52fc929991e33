# find_package(bournejade) gives the target bournejade::bournejade. BOURNEJADE_TARGET, set before, names the library
# of another processor, as `bin/archive` names it.
if(NOT DEFINED BOURNEJADE_TARGET)
  set(BOURNEJADE_TARGET x86_64-linux-gnu)
endif()
get_filename_component(BOURNEJADE_PREFIX "${CMAKE_CURRENT_LIST_DIR}/../../.." ABSOLUTE)
set(BOURNEJADE_ARCHIVE "${BOURNEJADE_PREFIX}/lib/bournejade/${BOURNEJADE_TARGET}/libbournejade.a")
if(NOT EXISTS "${BOURNEJADE_ARCHIVE}")
  set(bournejade_FOUND FALSE)
  set(bournejade_NOT_FOUND_MESSAGE "there is no library for ${BOURNEJADE_TARGET}")
  return()
endif()
if(NOT TARGET bournejade::bournejade)
  add_library(bournejade::bournejade STATIC IMPORTED)
  set_target_properties(bournejade::bournejade PROPERTIES
    IMPORTED_LOCATION "${BOURNEJADE_ARCHIVE}"
    INTERFACE_INCLUDE_DIRECTORIES "${BOURNEJADE_PREFIX}/include")
endif()
