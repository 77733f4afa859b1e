# A flat's heating routine. Client 5 is the landlord's phone, client 9 the tenant's.
root
run 0 5:0 any live vacant 12 | vacant 10
run 0 9:0 any dead party 24
run 0 5:2 any live moves in 19 | morning 21
run 0 9:1 list live
run 0 5:4 any live night 17
nested 9:1
run 1 9:2 text live été

# The lists, and the mark that the landlord has put before the step "moves in".
lists
mark tenant after 2 in 0
steps tenant 3

# An installer's mark behind the first step, one on the dead step, and two that cannot be made.
mark installer before 1 in 0
mark party before on 9:0
mark late after 6 in 0
mark nowhere after 0 in 7
where installer
where party
where late

# The hub lost power and woke without the last edits of both phones.
clip 5:3 9:1
lists
steps tenant 3
where party
known 5

# One clip more: the marked step itself is gone, and its mark is refused, not moved.
clip 5:2 9:1
where tenant
where installer
unclip
steps tenant 9
