-- Starts the package with what setup{} was given, or with its defaults.
require('oberon-bsp').start()
