-- The requests of one house and their answers. The service makes these tables in an empty database.
-- Rows of requests and answers are only added: the requests, in the order of their numbers, and the configuration are the state.

create table house (
    is_the_only_row boolean primary key default true check (is_the_only_row),
    format integer not null,
    configuration text not null
);

create table requests (
    number bigint primary key,
    sender text not null,
    place bigint not null,
    line bytea not null check (octet_length(line) <= 1048576 and position('\x0a'::bytea in line) = 0),
    sent timestamptz not null default now(),
    unique (sender, place)
);

create table answers (
    number bigint primary key references requests,
    line bytea not null
);

-- One row: the number of the last request.
create table last_request (
    is_the_only_row boolean primary key default true check (is_the_only_row),
    number bigint not null
);
insert into last_request (number) values (0);

-- Adds these lines of the sender, the first of them at this place among all its lines, and returns the number of the first. The others
-- have the numbers after it.
--
-- The numbers have to become visible in their order. A sequence does not give that: it gives a number before the transaction commits,
-- so of two transactions the one with the larger number may commit first, and a worker that asks for the numbers above the last one it
-- has would never see the other. Here the numbers come from a row that the transaction updates, and so it locks the row until it
-- has ended. The next one waits for that, and gets its numbers when all smaller ones are committed and can be seen; if the
-- transaction before it was rolled back, the row has its old number again. So whatever is seen of requests at one time has all the
-- numbers from 1 to the largest. It holds at each isolation level: above `read committed` the one that waited is refused and may try
-- again. The server writes commits in the same order, so it holds after a crash, and on a replica of the server.
create function send(sender text, place bigint, lines bytea[]) returns bigint
language plpgsql security definer set search_path = public, pg_temp as $$
declare
    before bigint;
begin
    update last_request set number = number + cardinality(lines) returning number - cardinality(lines) into strict before;
    insert into requests (number, sender, place, line)
        select before + nth, send.sender, send.place + nth - 1, given.line from unnest(lines) with ordinality as given (line, nth);
    notify requests;
    return before + 1;
end
$$;

-- Who may call it is granted to each front end's role:
-- `grant execute on function send to ..; grant select on house, requests, answers, last_request to ..`.
revoke execute on function send from public;
