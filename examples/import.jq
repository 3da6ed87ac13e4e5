# Lines for zitictl of what OpenZiti tells of a network (docs/IMPORT.md).
#
#   jq -r -f import.jq --slurpfile identities identities.json --slurpfile links links.json \
#       --slurpfile terminators terminators.json export.json
#
# export.json is of `ziti ops export --json`; the three lists are of `ziti edge list identities -j`,
# `ziti fabric list links -j` and `ziti edge list terminators -j`. For a list that is not at hand give /dev/null.
# What cannot become a line, or becomes another one, is told by a remark, a line that begins with '#'.

def most_entries: 64;
def longest_name: 64;

# A text as a name: other characters become low lines, and what is past the longest name goes.
def as_name: gsub("[^A-Za-z0-9._-]"; "_")[0:longest_name];

def line($command; $fields): "\($command) \($fields | tojson)";
def remark($text): "# \($text)";
def renamed($what): select(. != as_name) | remark("\($what) \(tojson) is \(as_name | tojson) here");

def entries: . // [];
def data($file): [$file[] | .data // . | .[]?];

# A role: '#all', an attribute behind '#', or a name behind '@'.
def as_role: if . == "#all" then . else .[0:1] + (.[1:] | as_name) end;
def roles: entries | map(as_role);

def too_many($what): select(length > most_entries) | remark("\($what) has \(length) entries, of which \(most_entries) may be");

def entity($command; $what; $more):
    (.name | renamed($what)),
    (.roleAttributes | entries | (.[] | renamed("attribute")), too_many("\($what) of attributes")),
    line($command; {name: (.name | as_name), attributes: (.roleAttributes | entries | map(as_name))} + $more);

def policy($command; $fields):
    (.name | renamed("policy")),
    ($fields | .[] | arrays | too_many("policy")),
    (if .postureCheckRoles | entries | length > 0
     then remark("policy \(.name | tojson) asks for posture checks, which are not here: it grants to more") else empty end),
    line($command; {name: (.name | as_name), semantic: (.semantic // "AllOf")} + $fields);

def capped($most): . // 0 | floor | if . > $most then $most else . end;
# A latency as milliseconds: the lists tell nanoseconds.
def milliseconds: ((. // 0) / 1000000) | capped(60000);

def link:
    (.id | as_name) as $name
    | (.id | renamed("link")),
      line("CreateLink"; {
          name: $name, a: (.sourceRouter.name | as_name), b: (.destRouter.name | as_name),
          cost: ((.staticCost // 1) | if . < 1 then 1 else capped(65535) end),
          latency_a: (.sourceLatency | milliseconds), latency_b: (.destLatency | milliseconds)}),
      (if .down == true or ((.state // "Connected") != "Connected")
       then line("ReportState"; {link: $name, router: (.sourceRouter.name | as_name), up: false}) else empty end);

def terminator($names):
    (.hostId // "") as $host
    | (if $host != "" and ($names[$host] == null)
       then remark("terminator \(.id | tojson): its host \($host | tojson) is in no list, so it has none here") else empty end),
      line("CreateTerminator"; {
          service: (.service.name | as_name), router: (.router.name | as_name),
          instance: ((.identity // "") | as_name), cost: (.cost | capped(65535)), precedence: (.precedence // "default")}
          + (if $names[$host] == null then {} else {host: ($names[$host] | as_name)} end));

# What the model has not, by the key of the export, one remark each.
def left_out:
    {configs: "configurations", configTypes: "types of configurations", postureChecks: "posture checks",
     authPolicies: "policies of authentication", certificateAuthorities: "certificate authorities",
     externalJwtSigners: "signers of tokens"} as $words
    | to_entries[] | select($words[.key] and (.value | length > 0))
    | remark("left out: \($words[.key]), \(.value | length) of them");

(data($identities) | map({key: .id, value: .name}) | from_entries) as $names
| left_out,
  (.identities | entries[] | entity("CreateIdentity"; "identity"; {})),
  (.services | entries[] | entity("CreateService"; "service"; {})),
  (.edgeRouters | entries[]
   | entity("CreateRouter"; "router"; {cost: (.cost | capped(65535)), no_traversal: (.noTraversal // false)}),
     (if .disabled then remark("router \(.name | tojson) is disabled, so it is not connected")
      else line("ConnectRouter"; {name: (.name | as_name)}) end)),
  (data($links)[] | link),
  (.servicePolicies | entries[]
   | policy("CreateServicePolicy"; {type, identity_roles: (.identityRoles | roles), service_roles: (.serviceRoles | roles)})),
  (.edgeRouterPolicies | entries[]
   | policy("CreateEdgeRouterPolicy"; {identity_roles: (.identityRoles | roles), router_roles: (.edgeRouterRoles | roles)})),
  (.serviceEdgeRouterPolicies | entries[]
   | policy("CreateServiceEdgeRouterPolicy"; {service_roles: (.serviceRoles | roles), router_roles: (.edgeRouterRoles | roles)})),
  (data($terminators)[] | terminator($names))
