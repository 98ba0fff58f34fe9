-- Of each two records that share a second by their own lines: by how many milliseconds the stamps of the first
-- one are later. verdicts.tsv has a line for each record: its file, a tab, and what irig judge --json says of it.
create table told (file, said);
.mode tabs
.import verdicts.tsv told
select a.file, b.file, (a.said ->> '$.stamp.late_us' - b.said ->> '$.stamp.late_us') / 1000.0
from told a
join told b on a.file < b.file
where a.said ->> '$.first.utc' <= b.said ->> '$.last.utc'
and b.said ->> '$.first.utc' <= a.said ->> '$.last.utc';
