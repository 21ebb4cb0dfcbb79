"""What the scripts around qwkdoor share: durable files, locks, archives, the program, and texts for a terminal.

The scripts judge no letter and read no packet. They carry files, call the program, and see to it that what a file
stands for is on the disk before anything rests on it.
"""
