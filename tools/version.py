"""The version of the packages that tools/package makes; for the tools beside this file."""
VERSION = '0.1.0'
