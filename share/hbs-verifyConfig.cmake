# For each processor whose archive is installed a target, such as hbs-verify::x86_64 and hbs-verify::cortex-m3.
get_filename_component(_hbs_verify_folder "${CMAKE_CURRENT_LIST_FILE}" REALPATH)
get_filename_component(_hbs_verify_prefix "${_hbs_verify_folder}/../../../.." ABSOLUTE)
file(GLOB _hbs_verify_archives "${_hbs_verify_prefix}/lib/hbs-verify/*/libhbs_verify.a")
foreach(_hbs_verify_archive IN LISTS _hbs_verify_archives)
    get_filename_component(_hbs_verify_folder "${_hbs_verify_archive}" DIRECTORY)
    get_filename_component(_hbs_verify_name "${_hbs_verify_folder}" NAME)
    if(NOT TARGET "hbs-verify::${_hbs_verify_name}")
        add_library("hbs-verify::${_hbs_verify_name}" STATIC IMPORTED)
        set_target_properties("hbs-verify::${_hbs_verify_name}" PROPERTIES
            IMPORTED_LOCATION "${_hbs_verify_archive}"
            INTERFACE_INCLUDE_DIRECTORIES "${_hbs_verify_prefix}/include/hbs-verify")
    endif()
endforeach()
