#!/usr/bin/env python3
"""Writes the book of a small made-up cloud, or of a laboratory's, which is smaller: what its plugin answers to each call. With `declaration`
it writes what both declare, for `steampipe explain`.

    python3 demo/make_cloud.py cloud > demo/cloud.json
    python3 demo/make_cloud.py lab > demo/cloud_lab.json
    python3 demo/make_cloud.py declaration > demo/keys.json
"""
import json
import sys

REGIONS = ["eu-north", "eu-west", "us-east", "us-west", "ap-south"]
SIZES = {"small": (2, 4096), "medium": (4, 16384), "large": (16, 65536)}
OWNERS = {"payments": "ann", "search": "bob", "mobile": "cleo", "data": "dan", "security": "eve", "platform": "fay", "research": "gil"}
BUDGETS = {"ann": 40000, "bob": 25000, "cleo": 9000, "dan": 60000, "fay": 35000, "gil": 5000}  # eve's may not be seen
TITLES = {
    "port 22 is open to all": "high",
    "disk isn't encrypted": "medium",
    "image is older than a year": "low",
    "no backup for 30 days": "medium",
    "key is in the metadata": "critical",
    "tag owner is missing": "low",
}


class Numbers:
    """The same numbers on every machine."""

    def __init__(self, state):
        self.state = state

    def below(self, bound):
        self.state = (self.state * 1103515245 + 12345) % 2**31
        return self.state // 65536 % bound

    def one_of(self, values):
        return list(values)[self.below(len(values))]


def day(number):
    return f"2025-{number // 28 % 12 + 1:02}-{number % 28 + 1:02}"


class Cloud:
    """How large a cloud is: the first number of what it has, and how many of each there are."""

    def __init__(self, start, first, teams, instances, findings, networks):
        self.numbers = Numbers(start)
        self.first = first
        self.teams = teams
        self.accounts = list(self.made_accounts())
        self.instances = list(self.made_instances(instances))
        self.findings = list(self.made_findings(findings))
        self.networks = list(self.made_networks(networks))

    def made_accounts(self):
        for at, team in enumerate(self.teams):
            for environment in ["production", "test"]:
                yield {
                    "id": f"acc-{self.first + 2 * at + (environment == 'test') + 1:03}",
                    "name": f"{team}-{environment}",
                    "team": team,
                    "environment": environment,
                    "active": (team, environment) != ("mobile", "test"),
                    "created_at": f"{day(self.numbers.below(100))}T09:00:00Z",
                }

    def made_instances(self, count):
        numbers = self.numbers
        for at in range(self.first, self.first + count):
            owner = numbers.one_of(self.accounts)
            size = numbers.one_of(SIZES)
            state = numbers.one_of(["running", "running", "running", "stopped"])
            yield {
                "id": f"i-{at + 1:04}",
                "account_id": owner["id"],
                "region": numbers.one_of(REGIONS),
                "size": size,
                "cpus": SIZES[size][0],
                "memory_mib": SIZES[size][1],
                "state": state,
                "address": f"10.{numbers.below(4)}.{numbers.below(250)}.{at + 1}" if state == "running" else None,
                "launched_at": f"{day(100 + numbers.below(200))}T{numbers.below(24):02}:00:00Z",
                "tags": {"team": owner["team"], "tier": numbers.one_of(["web", "worker", "store"])},
            }

    def made_findings(self, count):
        numbers = self.numbers
        for at in range(self.first, self.first + count):
            machine = numbers.one_of(self.instances)
            title = numbers.one_of(TITLES)
            yield {
                "id": at + 1,
                "instance_id": machine["id"],
                "account_id": machine["account_id"],
                "severity": TITLES[title],
                "title": title,
                "resolved": numbers.below(3) == 0,
                "opened_at": f"{day(300 + numbers.below(30))}T{numbers.below(24):02}:30:00Z",
            }

    def made_networks(self, count):
        """Networks, each with its subnets."""
        for at in range(self.first, self.first + count):
            network = {"id": f"net-{at + 1}", "region": self.numbers.one_of(REGIONS)}
            yield network, [
                {"network": network["id"], "name": name, "range": f"10.{at}.{k}.0/24", "free_addresses": self.numbers.below(254)}
                for k, name in enumerate(["public", "private", "store"][: self.numbers.below(2) + 2])
            ]


COLUMNS = {
    "account": "id text, name text, team text, environment text, active bool, created_at text, owner text getOwner, budget_usd int getBudget",
    "instance": "id text, account_id text, region text, size text, cpus int, memory_mib int, state text, address text,"
    " launched_at text, tags json",
    "finding": "id int, instance_id text, account_id text, severity text, title text, resolved bool, opened_at text",
    "subnet": "network text, name text, range text, free_addresses int",
}
ACCESS = {
    "account": {
        "list": {"function": "listAccounts"},
        "get": {"function": "getAccount", "keys": [{"column": "id"}]},
        "functions": [
            {"name": "getOwner", "retry": {"patterns": ["Throttled:*"], "attempts": 3, "backoff": "exponential", "interval": 20}},
            {"name": "getBudget", "depends": ["getOwner"], "ignore": ["AccessDenied:*"]},
        ],
    },
    "instance": {
        "list": {"function": "listInstances", "keys": [{"column": "region", "require": "optional"}]},
        "get": {"function": "getInstance", "keys": [{"column": "id"}]},
    },
    "finding": {
        "list": {
            "function": "listFindings",
            "keys": [{"column": "instance_id", "require": "any_of"}, {"column": "account_id", "require": "any_of"}],
        },
    },
    "subnet": {"list": {"function": "listSubnets", "parent": {"function": "listNetworks"}}},
}


def declared(table):
    columns = [dict(zip(["name", "kind", "function"], column.split())) for column in COLUMNS[table].split(",")]
    return {"name": table, "columns": columns, **ACCESS[table]}


def declaration():
    tables = ",\n".join(json.dumps(declared(table)) for table in COLUMNS)
    return f'{{"tables": [\n{tables}\n]}}'


def entry(call, items):
    """The reply to each call that has these members, with a line for each item."""
    lines = ",\n".join(json.dumps(item) for item in items)
    return f'{{"call": {json.dumps(call)}, "attempts": [{{"items": [\n{lines}\n]}}]}}'


def replies(cloud):
    """A call is answered by the first entry whose members it has, so functions stand before the lists and gets of their tables."""
    for account in cloud.accounts:
        attempts = [{"items": [{"owner": OWNERS[account["team"]]}]}]
        if account["team"] == "mobile":
            attempts.insert(0, {"items": [], "error": "Throttled: too many calls"})
        yield json.dumps({"call": {"function": "getOwner", "item": account}, "attempts": attempts})
    for owner, budget in BUDGETS.items():
        yield entry({"function": "getBudget", "results": {"getOwner": {"owner": owner}}}, [{"budget_usd": budget}])
    yield json.dumps({"call": {"function": "getBudget"}, "attempts": [{"items": [], "error": "AccessDenied: the budget may not be seen"}]})
    # Of the items of a list or a get the plugin gives those for which the conditions are true.
    yield entry({"table": "account"}, cloud.accounts)
    yield entry({"table": "instance"}, cloud.instances)
    yield entry({"table": "finding"}, cloud.findings)
    yield entry({"op": "parents", "table": "subnet"}, [network for network, _ in cloud.networks])
    for network, subnets in cloud.networks:
        yield entry({"table": "subnet", "parent": network}, subnets)


def book(cloud):
    lines = ",\n".join(replies(cloud))
    return f'{{"declaration": {declaration()},\n"versions": [[0, 1]],\n"replies": [\n{lines}\n]}}'


def main():
    what = sys.argv[1:]
    if what == ["cloud"]:
        print(book(Cloud(20260101, 0, ["payments", "search", "mobile", "data", "security", "platform"], 150, 220, 3)))
    elif what == ["lab"]:
        print(book(Cloud(20260202, 500, ["security", "research"], 12, 15, 1)))
    elif what == ["declaration"]:
        print(declaration())
    else:
        sys.exit("usage: make_cloud.py cloud, or lab, or declaration")


if __name__ == "__main__":
    main()
