"""What each case for members does: a module for each topic of cases.txt."""
