"""What the tools share. Python finds this package because it is next to the executables of tools/."""
