select id, region, cpus, memory_mib from cloud.instance where state = 'running' and cpus >= 4 order by memory_mib desc, id limit 5
select id, region, size, tags from cloud.instance where id in ('i-0042', 'i-0007')
select id, address, region from cloud.instance where address is null and region in ('eu-north', 'us-west') order by id limit 3
select name, owner, budget_usd from cloud.account where environment = 'production'
select a.name, i.id, f.title from cloud.instance i join cloud.account a on a.id = i.account_id join cloud.finding f on f.instance_id = i.id where i.region = 'eu-north' and i.state = 'stopped' and i.size = 'large' and f.severity <> 'low' order by i.id, f.title
select network, name, range, free_addresses from cloud.subnet where free_addresses > 50 order by free_addresses desc
select id, name, owner from clouds.account where team = 'security'
select user_id, name, home as folder from host.user where user_id < 100 order by user_id limit 5
select pid, name, threads, open_files from host.process where pid = 1
select title from cloud.finding where severity = 'critical'
select id, region from cloud.instance where cpu >= 4
