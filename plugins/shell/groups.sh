#!/bin/sh
# A plugin in POSIX shell: one table, the groups of /etc/group.

# The number of a request: what stands after the first "id": (within a text the quotes are escaped).
number_of() {
    case $1 in *'"id":'*) rest=${1#*\"id\":} && printf '%s' "${rest%%[!0-9]*}" ;; esac
}

# The items, and the end. Quotes and backslashes are escaped, and control characters left out.
list_groups() {
    [ -r /etc/group ] || { printf '{"id":%s,"error":"NotFound: no /etc/group"}\n' "$1" && return; }
    tr -d '\001-\011\013-\037\177' < /etc/group | sed 's/[\\"]/\\&/g' | while IFS=: read -r name _ group_id members || [ -n "$name" ]; do
        case $group_id in '' | *[!0-9]* | 0?*) continue ;; esac
        printf '{"id":%s,"item":{"name":"%s","group_id":%s,"members":"%s"}}\n' "$1" "$name" "$group_id" "$members"
    done
    printf '{"id":%s,"end":true}\n' "$1"
}

columns='[{"name":"name","kind":"text"},{"name":"group_id","kind":"int"},{"name":"members","kind":"text"}]'
declaration='{"tables":[{"name":"account_group","columns":'$columns',"list":{"function":"listGroups"}}]}'

while IFS= read -r request; do
    id=$(number_of "$request")
    [ -n "$id" ] || continue
    case $request in
    *'"op":"declare"'*) printf '{"id":%s,"declaration":%s}\n' "$id" "$declaration" ;;
    *'"op":"version"'*) printf '{"id":%s,"version":1}\n' "$id" ;;
    *'"op":"list"'*'"table":"account_group"'*) list_groups "$id" ;;
    *) printf '{"id":%s,"error":"Unsupported: no such call"}\n' "$id" ;;
    esac
done
