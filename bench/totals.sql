-- Orders as documents, and their totals for each company, year and month, which a trigger keeps. A group without orders is gone.
drop table if exists orders, totals;

create table orders (id text collate "C" primary key, doc jsonb not null);

create table totals (
    company text collate "C", year int, month int, total bigint not null, count bigint not null,
    primary key (company, year, month));

create or replace function changed() returns trigger language plpgsql as $$
declare
    at text;
    rest bigint;
begin
    if tg_op <> 'INSERT' then
        at := old.doc->>'OrderedAt';
        update totals set total = total - (old.doc->>'Cents')::bigint, count = count - 1
            where company = old.doc->>'Company' and year = left(at, 4)::int and month = substr(at, 6, 2)::int
            returning count into rest;
        if rest = 0 then
            delete from totals
                where company = old.doc->>'Company' and year = left(at, 4)::int and month = substr(at, 6, 2)::int;
        end if;
    end if;
    if tg_op <> 'DELETE' then
        at := new.doc->>'OrderedAt';
        insert into totals
            values (new.doc->>'Company', left(at, 4)::int, substr(at, 6, 2)::int, (new.doc->>'Cents')::bigint, 1)
            on conflict (company, year, month)
            do update set total = totals.total + excluded.total, count = totals.count + excluded.count;
    end if;
    return null;
end $$;

create trigger changed after insert or update or delete on orders for each row execute function changed();

-- The same draws as those of `raven measure`: the remainders follow one another in a, b and c.
create or replace procedure fill(seed bigint, count int) language plpgsql as $$
declare
    a bigint;
    b bigint;
    c bigint := seed;
begin
    for number in 1..count loop
        a := c * 48271 % 2147483647;
        b := a * 48271 % 2147483647;
        c := b * 48271 % 2147483647;
        insert into orders values ('orders/' || number, jsonb_build_object(
            'Cents', 1 + c % 100000,
            'Company', 'companies/' || 1 + a % 25,
            'OrderedAt', (1996 + b % 3) || '-' || lpad((1 + b / 3 % 12)::text, 2, '0')
                || '-' || lpad((1 + b / 36 % 28)::text, 2, '0') || 'T00:00:00.0000000'));
        commit;
        if number % 10 = 0 then
            delete from orders where id = 'orders/' || number - 5;
            commit;
        end if;
    end loop;
end $$;

prepare put(text, jsonb) as insert into orders values ($1, $2);

prepare del(text) as delete from orders where id = $1;
