# A commit is slow, and its sender is paused. Another member reads the partition by then.
a, b: group g, assignor range, subscribes t

t: 2 partitions, id 11111111-1111-1111-1111-111111111111
join a, deliver, take
commit a t/1 at 10
join b, deliver, take
bring a

# a gives the partition up, and its commit arrives again.
beat a, deliver, take
release a t/1
beat a owned, deliver
bring a
take a
beat b, deliver, take
commit b t/1 at 20, bring
bring a

# a is paused, is removed, and commits before it has heard of that.
clock 30 s
beat b, deliver, take
wait 15 s
beat b, deliver, take
commit a t/0 at 30, bring
