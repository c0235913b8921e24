# a commits and then pauses. Its commit arrives when it has been removed, and again when it is back.
a, b: group g, assignor range, subscribes t

t: 2 partitions, id 11111111-1111-1111-1111-111111111111
join a, deliver, take
join b, deliver, take
settle
commit a t/0 at 100
clock 30 s
beat b, deliver, take

# a is removed, and b gets its partition.
wait 15 s
beat b, deliver, take
commit b t/0 at 140, bring
bring a
beat a, deliver, take

# a comes back, and b has to give the partition up. It may commit until it has.
join a, deliver, take
beat b, deliver, take
commit b t/0 at 150, bring
release b t/0
beat b owned, deliver, take
beat a, deliver, take
bring a
commit a t/0 at 160, bring
