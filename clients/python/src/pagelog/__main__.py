"""`python3 -m pagelog` is `pagelogctl`."""

from pagelog.command import main

main()
