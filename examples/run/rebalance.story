# A second member joins. It gets a partition only after the first one has reported that it gave it up.
a, b: group g, assignor range, subscribes t

t: 2 partitions, id 11111111-1111-1111-1111-111111111111
join a, deliver, take
join b, deliver, take
beat a, deliver, take
release a t/1
beat a owned, deliver, take
beat b, deliver, take
