# A static member is shut down, and its successor starts under the same instance id.
a, b: group g, static as i1, assignor range, subscribes t
c: group g, assignor range, subscribes t

t: 2 partitions, id 11111111-1111-1111-1111-111111111111
join a, deliver, take
join c, deliver, take
beat a, deliver, take
release a t/1
beat a owned as report, deliver, take
beat c, deliver, take

# The successor is too early.
join b, deliver, take

# a goes away, and b takes over. Late repeats of a's requests are refused.
quit a away, deliver
beat c full, deliver, take
join b, deliver, take
deliver a
deliver report
beat c, deliver, take
