"""The version of all that is installed. The programs in Rattle have the same in their sources, and a test compares them."""
VERSION = '0.1.0'
