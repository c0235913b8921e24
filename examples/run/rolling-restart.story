# Two static members restart. a2 and b2 are the pods of a and b afterwards.
a: group g, static as i1, subscribes t
b: group g, static as i2, subscribes t
a2: group g, static as i1, subscribes t
b2: group g, static as i2, subscribes t

join a, deliver, take
join b, deliver, take
t: 4 partitions, id 11111111-1111-1111-1111-111111111111
beat a, deliver, take
beat b, deliver, take

# The first pod is back after 10 seconds.
clock 10 s
quit a away, deliver
clock 20 s
beat b, deliver, take
join a2, deliver, take

# The second one takes 50 seconds, and its session is over.
clock 30 s
quit b away, deliver
clock 50 s
beat a2, deliver, take
wait 25 s
beat a2, deliver, take
clock 80 s
join b2, deliver, take
beat a2, deliver, take
release a2 t/0
release a2 t/1
beat a2 owned, deliver, take
beat b2, deliver, take
