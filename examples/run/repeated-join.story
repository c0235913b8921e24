# A join says: I own nothing. What if an old join is delivered again?
a, b: group g, assignor range, subscribes t

t: 2 partitions, id 11111111-1111-1111-1111-111111111111
join a, deliver, take

# a is removed, hears of it, and joins again under its id.
wait 45 s
beat a, deliver, take
join a as rejoin, deliver, take
join b, deliver, take

# The join comes again, and the partition is still a's.
deliver a
beat b, deliver, take
beat a, deliver, take
deliver rejoin
release a t/1
beat a owned, deliver, take
beat b, deliver, take
