"""Texts that were written by hand, as `observe` and the report have them, and the tables that tools/epochs makes of them."""

# What `observe` has to write of CONTROLLER.md's example: the program that ends with 7, at eight pages and eight entries in each
# table.
EXAMPLE = """700 0 commit 0 overlapped 0
708 3 epoch 1 ends at 3 by end
722 3 commit 1 overlapped 0
722 3 exit 7 at 3
cycles 722 boot 525 hart 8 engine 11 nvmdrain 178 dramdrain 0
hart moved 4 retired 3 flushed 0 merged 0 promoted 0 sealed 1
engine copied 0 page 0 state 5 table 3 barrier 1 commit 1 committed 1
waiting 7
nvm reads 449 writes 531 barriers 4
lost 0
epochs 1 early 0 overlapped 0
"""

# A run with a cut in a loading, and one while a checkpoint is under way. Eight pages. The numbers are made up; their sums are
# right, and the boots are those of eight entries in each table: 1 read and 74 writes until the cut, 1 read, 522 writes and 2
# barriers of the loading, and 10 reads of the recovery.
CUTS = """100 - cut 1 at cycle 100
101 0 reload
800 0 commit 0 overlapped 0
1000 60 epoch 1 ends at 60 by length
1100 80 commit 1 overlapped 20
1300 120 epoch 2 ends at 120 by length
1350 130 cut 2 at cycle 1350
1360 60 restart 1 at 60
1560 120 epoch 2 ends at 120 by length
1660 140 commit 2 overlapped 20
1700 150 epoch 3 ends at 150 by exhausted 1 1 1
1750 150 commit 3 overlapped 0
1800 160 epoch 4 ends at 160 by end
1850 160 commit 4 overlapped 0
1850 160 exit 0 at 160
cycles 1850 boot 610 hart 700 engine 50 nvmdrain 480 dramdrain 10
hart moved 460 retired 230 flushed 4 merged 1 promoted 0 sealed 5
engine copied 2 page 0 state 25 table 11 barrier 4 commit 4 committed 4
waiting 20
nvm reads 938 writes 645 barriers 10
lost 70
epochs 5 early 1 overlapped 40
"""

# A run of two harts of which hart 1 traps. Its numbers are those of a test of crates/observe.
TWO_HARTS = """662 0 commit 0 overlapped 0
674 5 epoch 1 ends at 5 by end harts 3 2
693 5 commit 1 overlapped 0
693 5 trap 7 at 5
trap 10004 503823 10 hart 1
cycles 693 boot 530 hart 12 engine 16 nvmdrain 135 dramdrain 0
hart moved 6 retired 5 flushed 0 merged 0 promoted 0 sealed 1
hart0 moved 4 retired 3
hart1 moved 2 retired 2
engine copied 0 page 0 state 10 table 3 barrier 1 commit 1 committed 1
waiting 12
nvm reads 449 writes 541 barriers 4
lost 0
epochs 1 early 0 overlapped 0
"""

BARS_OF_TWO_HARTS = """epoch begin end from to why committed cut
1 662 674 0 5 end 693 -
"""

BARS_OF_CUTS = """epoch begin end from to why committed cut
1 800 1000 0 60 length 1100 -
2 1000 1300 60 120 length - -
3 1300 1350 120 130 - - 2
2 1360 1560 60 120 length 1660 -
3 1560 1700 120 150 exhausted 1750 -
4 1700 1800 150 160 end 1850 -
"""

BARS_OF_EXAMPLE = """epoch begin end from to why committed cut
1 700 708 0 3 end 722 -
"""

# A resumed run that its limit stops, as a report and as an OUT.
REPORT = """restart 1 at 60
epoch 2 ends at 120 by length
commit 2 overlapped 20
limit 500
"""

RESUMED = """10 60 restart 1 at 60
210 120 epoch 2 ends at 120 by length
310 140 commit 2 overlapped 20
cycles 500 boot 10 hart 460 engine 11 nvmdrain 19 dramdrain 0
hart moved 300 retired 159 flushed 0 merged 0 promoted 0 sealed 1
engine copied 0 page 0 state 5 table 3 barrier 1 commit 1 committed 1
waiting 0
nvm reads 500 writes 9 barriers 2
lost 0
epochs 1 early 0 overlapped 20
"""

BARS_OF_REPORT = """epoch begin end most why committed cut
2 60 120 - length 140 -
3 120 140 - - - -
"""

BARS_OF_RESUMED = """epoch begin end from to why committed cut
2 10 210 60 120 length 310 -
3 210 500 120 - - - -
"""


def registers(**values):
    """The lines of a hart's registers, of which these are not 0."""
    return "".join(f"x{k} {values.get(f'x{k}', 0):x}\n" for k in range(1, 32))


# A state with one hart, and one with two of which both have reserved something. Memory is two and a half rows of 16 bytes.
STATE = f"""running
count 125
console 12
cursor 3
break 12a40
hart 0 10078
{registers(x1=0x10074, x2=0x17FF0, x31=(1 << 64) - 1)}memory 10000 40
10000 5d00893
10018 ff00000000000000
"""

STATE_OF_TWO = f"""trap 7
count 5
console 0
cursor 0
break 11000
hart 0 10000
{registers(x5=1)}reserved none
hart 1 10004
{registers(x10=0x10)}reserved 8 10010
memory 10000 16
"""

# A trace with a store and a load, and at last an instruction of hart 1 that could not be fetched.
TRACE = """trace
703 0 10000 1297
708 0 10004 52a223 11004 4 11000
711 0 10008 52c303 11005 1 10
1850 1 10012 -
"""

# A run of one store, beside whose checkpoint the program ends, with what is counted of it. (Its writes are put on two places.)
STORED = """\
700 0 commit 0 overlapped 0
710 2 epoch 1 ends at 2 by length
730 4 commit 1 overlapped 2
731 4 epoch 2 ends at 4 by end
744 4 commit 2 overlapped 0
744 4 exit 0 at 4
cycles 744 boot 525 hart 15 engine 22 nvmdrain 182 dramdrain 0
hart moved 8 retired 4 flushed 1 merged 0 promoted 0 sealed 2
engine copied 0 page 0 state 10 table 6 barrier 2 commit 2 committed 2
waiting 14
nvm reads 449 writes 541 barriers 6
lost 0
epochs 2 early 0 overlapped 2
causes
boot 525
instructions 8
meanwhile 4
flushes 1
merges 0
seals 2
promotions 0
copies 0
homes 0
pages 0
processor 10
tables 6
commits 2
barriers 4
nvmdrains 182
dramdrains 0
nothing 0
waiting 14
epochs
epoch\tfrom\tto\tend\tboot\tinstructions\tmeanwhile\tflushes\tmerges\tseals\tpromotions\tcopies\thomes\tpages\tprocessor\ttables\tcommits\tbarriers\tnvmdrains\tdramdrains\tnothing\twaiting
-\t1\t700\tboot\t525\t0\t0\t0\t0\t0\t0\t0\t0\t0\t0\t0\t0\t0\t175\t0\t0\t0
1\t701\t710\tseal\t0\t8\t0\t1\t0\t1\t0\t0\t0\t0\t0\t0\t0\t0\t0\t0\t0\t0
2\t711\t731\tseal\t0\t0\t4\t0\t0\t1\t0\t0\t0\t0\t5\t3\t1\t2\t5\t0\t0\t6
3\t732\t744\trun\t0\t0\t0\t0\t0\t0\t0\t0\t0\t0\t5\t3\t1\t2\t2\t0\t0\t8
wear
0 3
1 538
"""
