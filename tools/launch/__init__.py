"""What the launcher `./coord` does where the program isn't ready to run.

list-sources   lists the sources with their times, which shows in milliseconds whether a program was made of them
sources        which file of out/ was made of which sources
build          proves the crates side by side, and builds the program or the library
progress       how long a build takes
unproved       compiles the program without proofs
answers        what the program answers to --help and --version
"""
