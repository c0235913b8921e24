"""What tools/package makes packages of.

options      what --help shows, as a table: of it come the man pages
manual       man pages, of the options and of docs/COMMANDS.md
contents     the files of a package
archives     .deb and .tar.gz, the same bytes for the same files
files/       what is taken as it is
"""
