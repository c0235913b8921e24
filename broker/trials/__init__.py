"""Trials of stock Kafka consumers against a broker: what `tools/check-clients` and `tools/record-conversations` play, with a
relay that records frames. What prints show is judged here for `tools/check-failover`, too.

roots       the folders with Debian's packages
consumer    consumers that print what happens to them; it runs in those folders
consumers   consumers as processes
trial       a run of one scenario
scenarios   what consumers go through, and what must hold then
recordings  what they go through while a conversation is recorded
prints      who owned what and what was read, by the consumers' prints
holds       who may read what, by the frames
verdict     what must hold at the end of every trial
relay       passes frames on before a broker, records them, cuts and delays
log         what the relay has recorded, as requests with their replies
conversation  a recorded conversation, as a file
replay      plays conversations again, and compares bytes
"""
