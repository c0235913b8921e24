# A member is cut off twice: first its requests are lost, and then the replies to it.
a, b, c: group g, subscribes t

join a, deliver, take
join b, deliver, take
t: 3 partitions, id 11111111-1111-1111-1111-111111111111
beat a, deliver, take
beat b, deliver, take

# For 20 seconds no request of a arrives.
clock 10 s
beat a as delayed, lose
clock 20 s
beat a, lose
beat b, deliver, take
clock 30 s
beat a, deliver, take
deliver delayed

# c joins. Now the replies to a are lost, and it never learns that it has to revoke t/0.
join c, deliver, take
beat a, deliver, lose
clock 60 s
beat b, deliver, take
beat c, deliver, take
beat a, deliver

# Its rebalance timeout is over, and c gets the partition.
wait 30 s
beat c, deliver, take
commit a t/0 at 77, bring
commit c t/0 at 50, bring

# The network works again.
lose a
beat a, deliver, take
join a, deliver, take
settle
