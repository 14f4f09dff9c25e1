-- What SQL can ask of a store. The readings are packed: examples/unpack.py prints these.
-- Each known day: its length in minutes, which is that of its latest update, its unit, how many updates it has, and the bytes that these take.
SELECT 'day', p.nmi, p.suffix, strftime('%Y%m%d', p.day * 86400, 'unixepoch'),
    (SELECT f.length FROM mds_form AS f WHERE f.nmi = p.nmi AND f.suffix = p.suffix AND f.day = p.day ORDER BY f.moment DESC LIMIT 1),
    h.unit, count(*), sum(length(p.body))
FROM mds_pack AS p JOIN mds_head AS h ON h.nmi = p.nmi AND h.suffix = p.suffix AND h.day = p.day
GROUP BY p.nmi, p.suffix, p.day
ORDER BY p.nmi, p.suffix, p.day;
-- The details of each day, the current ones last: the day, the moment of the file, then configuration, register, data stream and meter. A
-- day that isn't here has those of the nearest earlier day of its stream.
SELECT 'details', nmi, suffix, strftime('%Y%m%d', day * 86400, 'unixepoch'), strftime('%Y%m%d%H%M%S', moment, 'unixepoch'),
    configuration, register, datastream, meter
FROM mds_daydetail
ORDER BY nmi, suffix, day, moment, configuration, register, datastream, meter, next;
-- Each event: its day, transaction code, service order, moment and index read. A moment of -1 is none.
SELECT 'event', nmi, suffix, strftime('%Y%m%d', day * 86400, 'unixepoch'), trans, ticket,
    CASE moment WHEN -1 THEN '' ELSE strftime('%Y%m%d%H%M%S', moment, 'unixepoch') END, reading
FROM mds_event
ORDER BY nmi, suffix, day, moment;
-- Each accumulation: its register, the moments of its reads, the update, and its fields and notes as they are kept.
SELECT 'period', nmi, suffix, register, strftime('%Y%m%d%H%M%S', start, 'unixepoch'), strftime('%Y%m%d%H%M%S', finish, 'unixepoch'),
    strftime('%Y%m%d%H%M%S', moment, 'unixepoch'), body
FROM mds_period
ORDER BY nmi, suffix, register, start, finish, moment;
-- Each substitution job: how many intervals it filled in, and what it said.
SELECT 'job', id, total, body
FROM mds_job
ORDER BY id;
