# The coordinator grants a partition, and the member never learns of it. When may another one get it?
a, b: group g, assignor range, subscribes t
c: group g, static as i1, assignor range, subscribes t

t: 2 partitions, id 11111111-1111-1111-1111-111111111111
join a, deliver, take
join b, deliver, take
beat a, deliver, take
release a t/1
beat a owned, deliver, take

# b is granted t/1, and the reply is lost.
beat b, deliver as grant, lose

# Now t/0 is to be c's, and t/1 a's.
join c, deliver, take
beat a, deliver, take
release a t/0
beat a owned, deliver, take

# b reports that it owns nothing. The lost reply comes too late.
beat b, deliver
take grant
take b
beat a, deliver, take
beat c, deliver, take
