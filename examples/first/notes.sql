create table notes (id int4 primary key, body text);
create role authenticated;
grant select on notes to authenticated;
