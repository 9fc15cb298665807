select a.name, a.owner, i.id, f.title from cloud.instance i join cloud.account a on a.id = i.account_id join cloud.finding f on f.instance_id = i.id where i.region in ('eu-north', 'us-west') and f.severity = 'critical'
select name, budget_usd from clouds.account where id in ('acc-009', 'acc-501')
select network, name from cloud.subnet limit 2
select title from cloud.finding where severity = 'critical'
