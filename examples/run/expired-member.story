# A member is silent for too long, and its partitions go to another one. Then it wakes up.
a, b: group g, assignor range, subscribes t

t: 2 partitions, id 11111111-1111-1111-1111-111111111111
join a, deliver, take
join b, deliver, take

# A heartbeat of a is under way for a long time.
beat a owned
clock 30 s
beat b, deliver, take

# a is removed, doesn't know it, and reads on.
wait 15 s
beat b, deliver, take
deliver a
commit a t/0 at 9, bring
take a

# It comes back under its id, and gets nothing before b has reported.
join a, deliver, take
beat b, deliver, take
release b t/0
beat a, deliver, take
beat b owned, deliver, take
beat a, deliver, take
