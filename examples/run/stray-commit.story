# A commit is checked against its sender's member epoch alone: a may set back the offset of a partition that b holds.
a, b: group g, assignor range, subscribes t

t: 2 partitions, id 11111111-1111-1111-1111-111111111111
join a, deliver, take
join b, deliver, take
beat a, deliver, take
release a t/1
beat a owned, deliver, take
beat b, deliver, take
commit b t/1 at 50, bring
commit a t/1 at 10, bring
