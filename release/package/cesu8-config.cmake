# The targets cesu8::cesu8, the static library, and cesu8::shared, the shared object. Their paths are
# relative to this file, so all can be moved together. Symbolic links in its path are resolved first: if
# /lib is a link to /usr/lib, its parent folder must be /usr and not /.
if(NOT TARGET cesu8::cesu8)
    # Up to the folder that contains the libraries.
    set(_cesu8_up ..)
    get_filename_component(_cesu8_folder "${CMAKE_CURRENT_LIST_DIR}" REALPATH)
    get_filename_component(_cesu8_libdir "${_cesu8_folder}/../.." ABSOLUTE)
    get_filename_component(_cesu8_prefix "${_cesu8_libdir}/${_cesu8_up}" ABSOLUTE)
    add_library(cesu8::cesu8 STATIC IMPORTED)
    set_target_properties(cesu8::cesu8 PROPERTIES
        IMPORTED_LOCATION "${_cesu8_libdir}/libcesu8.a"
        IMPORTED_LINK_INTERFACE_LANGUAGES C
        INTERFACE_INCLUDE_DIRECTORIES "${_cesu8_prefix}/include")
    add_library(cesu8::shared SHARED IMPORTED)
    set_target_properties(cesu8::shared PROPERTIES
        IMPORTED_LOCATION "${_cesu8_libdir}/libcesu8.so.@MAJOR@"
        IMPORTED_SONAME libcesu8.so.@MAJOR@
        INTERFACE_INCLUDE_DIRECTORIES "${_cesu8_prefix}/include")
    unset(_cesu8_up)
    unset(_cesu8_folder)
    unset(_cesu8_libdir)
    unset(_cesu8_prefix)
endif()
