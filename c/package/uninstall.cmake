# Removes what `cmake --install` has installed from the folder in which this runs, as its list says.
if(NOT EXISTS install_manifest.txt)
  message(FATAL_ERROR "nothing was installed from here: there is no install_manifest.txt")
endif()
file(STRINGS install_manifest.txt INSTALLED)
foreach(name IN LISTS INSTALLED)
  file(REMOVE "$ENV{DESTDIR}${name}")
endforeach()
