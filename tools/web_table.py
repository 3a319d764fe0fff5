"""Requests over HTTP: each row of the table in docs/USING.md, and each refusal of it that a request alone can bring."""


def put(body, context=None):
    return ["-X", "PUT", "--data-binary", body, *(["-H", f"Mvd-Context: {context}"] if context else [])]


def delete(context=None):
    return ["-X", "DELETE", *(["-H", f"Mvd-Context: {context}"] if context else [])]


def post(body):
    return ["-X", "POST", "--data-binary", body]


def by_curl():
    """The path of each request, the words of curl, the status, and a part of the body."""
    rome, last = '{"city":"Rome","days":2}', "1:281474976710655"
    yield "/keys/t", [], 404, '{"key":"t","context":"-","siblings":[]}'
    yield "/keys/t", put('{ "city": "Rome",\n"days": 2}'), 201, '{"dot":"1:1","context":"1:1"}'
    yield "/keys/t", [], 200, '{"key":"t","context":"1:1","siblings":[{"dot":"1:1","document":' + rome + '}]}'
    yield "/keys/%74", [], 200, '"key":"t"'
    yield "/index/city?is=%22Rome%22", [], 200, '{"places":[{"term":"Rome","key":"t","dot":"1:1"}]}'
    yield "/index/city?from=%22R%22&to=%22S%22", [], 200, '"key":"t"'
    yield "/index/city?from=%22S%22&to=%22R%22", [], 200, '{"places":[]}'
    yield "/index/city?is=%22Rome%22&after=1:1%20t%20%22Rome%22", [], 200, '{"places":[]}'
    yield "/index/city?from=%22R%22&to=%22S%22&limit=10&page=2&after=1:1%20t%20%22Rome%22", [], 200, '{"places":[]}'
    yield "/views/visits/rows", [], 200, '{"term":"Rome","count":1,"sum":2,"least":2,"greatest":2}'
    yield "/views/visits/rows?after=%22Rome%22", [], 200, '{"rows":[]}'
    yield "/views/visits/row?is=%22Rome%22", [], 200, '"count":1'
    yield "/views/visits/row?is=null", [], 200, '"count":0'
    for path in "", "0", "00", "000", "fff":
        yield f"/tree?path={path}", [], 200, '"keys":[' if len(path) == 3 else '"children":['
    yield "/keys", [], 200, '{"keys":[{"key":"t","siblings":1}]}'
    yield "/keys?prefix=t&after=s&live=1", [], 200, '{"keys":[{"key":"t","siblings":1}]}'
    yield "/keys?prefix=t&digests=1", [], 200, '{"keys":[{"key":"t","siblings":1,"digest":"'
    yield "/keys?prefix=u&digests=1", [], 200, '{"keys":[]}'
    yield "/keys?path=000&prefix=%74", [], 200, '"key":"t"'
    yield "/conflicts?after=a", [], 200, '{"keys":[]}'
    yield "/changes", [], 200, '"keys":[],"resync":true}'
    yield f"/changes?wait=0&since={'e' * 64}", [], 200, '"resync":true}'
    lines = '{"key":"m","document":{}}\n{"key":"m","context":"1:1","document":{"a":1}}\r\n{"key":"m","context":"1:2"}\n'
    yield "/keys", post(lines), 200, '{"dot":"1:1"}\n{"dot":"1:2"}\n{}'
    yield "/keys?prefix=m", [], 200, '{"keys":[{"key":"m","siblings":0}]}'
    yield "/keys?prefix=m&live=1", [], 200, '{"keys":[]}'
    yield "/keys", post('{"key":" ","document":{}}\n{"key":"m","document":[]}'), 200, '{"refused":1,"name":"BadKey"}\n{"refused":4,"name":"NotObject"}'
    state = '{"key":"p","context":"2:1","siblings":[{"dot":"2:1","document":{"a":1}}]}'
    yield "/push", post(state + "\n" + state.replace('"document":{"a":1}', '"text":"{ \\"a\\" : 1 }"')), 200, "{}\n{}\n"
    yield "/push", post(state.replace('"a":1', '"a":2') + "\n" + state.replace("2:1", "2:2", 1)), 200, '{"refused":11,"name":"DotClash"}\n{}\n'
    yield "/push", post(state.replace("2:1", "2:0", 1)), 200, '{"refused":2,"name":"BadContext"}'
    yield "/push", post(state.replace("2:1", "3:1", 1)), 200, '{"refused":33,"name":"BadBody"}'
    yield "/push", post(state + '\n{"key":"p"}\n'), 400, '{"refused":33,"name":"BadBody","line":2}'
    yield "/get", post('"p"\n"q"\n'), 200, state.replace("2:1", "2:2", 1) + '\n{"key":"q","context":"-","siblings":[]}\n'
    yield "/get", post('"p"\n\n'), 400, '"line":2}'
    yield "/get", post('" "'), 200, '{"refused":1,"name":"BadKey"}'
    yield "/keys", post('{"key":"m","context":"-"}\n{"key":"m"}\n'), 400, '"line":2}'
    yield "/tree?paths=,fff,0", [], 200, '{"path":"","digest":"'
    yield "/tree?paths=fff%2Cffe", [], 200, '{"path":"fff","keys":[]}\n{"path":"ffe","keys":[]}\n'
    yield "/tree?paths=f,g", [], 400, '{"refused":14,"name":"BadPath"}'
    yield "/root", [], 200, '"site":1}'
    yield "/metrics", [], 200, 'mvd_requests_total{kind="put",outcome="done"}'
    yield "/", [], 200, "<!DOCTYPE html>"
    for path in "/keys/t", "/keys", "/conflicts", "/changes", "/tree", "/root", "/metrics", "/", "/index/city?is=1":
        yield path, ["-I"], 200, "cache-control: no-store"
    yield "/", ["-I"], 200, "content-security-policy: default-src 'none'"
    # 1: a key
    for key in "%20", "k" * 129, "%C3%A9", "", "%00", "%ff":
        for words in [], put("{}"), delete("1:1"):
            yield f"/keys/{key}", words, 400, '{"refused":1,"name":"BadKey"}'
    for path in "/tree?path=000&after=%20", "/keys?prefix=%20", "/keys?after=%20", "/conflicts?after=%20":
        yield path, [], 400, '{"refused":1,"name":"BadKey"}'
    # a bad escape stands for itself
    for key in "a%zz", "a%4", "a%":
        yield f"/keys/{key}", [], 404, f'"key":"{key}"'
    # 2: a context
    for context in "x", "1:0", "0:1", "1:1,1:1", "2:1,1:1", "1", "1:1,", "1:281474976710656":
        yield "/keys/t", put("{}", context), 400, '{"refused":2,"name":"BadContext"}'
        yield "/keys/t", delete(context), 400, '"refused":2'
    yield "/keys/t", delete(), 400, '"refused":2'
    # 3 to 6: a document
    for body in "", "{", '{"a":}', b'{"a":"\xff"}', "{} {}":
        yield "/keys/t", put(body), 400, '{"refused":3,"name":"BadDocument","at":""}'
    for body in "[1]", "1", "null", '"a"':
        yield "/keys/t", put(body), 400, '{"refused":4,"name":"NotObject","at":""}'
    for body, place in ('{"n":1.5}', "/n"), ('{"n":1e3}', "/n"), ('{"n":[0,9223372036854775808]}', "/n/1"), \
            ('{"b":-0,"a/":[{"~":1},{"~":1.5}]}', "/a~1/1/~0"), ('{"a\\"":1.5}', '/a\\"'), ('{"":{"":1.5}}', "//"), \
            ('{"n":1.5' + " " * 65_536 + "}", ""):
        yield "/keys/t", put(body), 400, '{"refused":5,"name":"BadNumber","at":"%s"}' % place
    yield "/keys/t", put('{"n":"' + "x" * 65_536 + '"}'), 400, '{"refused":6,"name":"DocumentTooLong","at":""}'
    # 8 to 10: what the site cannot take
    yield "/keys/full", put("{}", last), 409, '{"refused":8,"name":"Exhausted"}'
    for number in range(1, 19):
        many = number < 18
        yield "/keys/large", put('{"n":"' + "x" * 65_500 + '"}'), 201 if many else 409, f'"1:{number}"' if many else '{"refused":9,"name":"StateTooLarge"}'
    # 12 to 15, and 33: lists
    for path in "/index/none?is=1", "/index/?is=1", "/index/%ff?is=1":
        yield path, [], 404, '{"refused":12,"name":"NoIndex"}'
    for path in "/views/none/rows", "/views/none/row?is=1", "/views/%20/rows":
        yield path, [], 404, '{"refused":13,"name":"NoView"}'
    for path in "x", "0000", "A", "0%20":
        yield f"/tree?path={path}", [], 400, '{"refused":14,"name":"BadPath"}'
    for path in "/index/city?is=x", "/index/city", "/index/city?from=1", "/views/visits/row", "/views/visits/rows?after=x", "/index/city?is=%7B%7D":
        yield path, [], 400, '{"refused":15,"name":"BadTerm"}'
    for after in "x", "0:1%20t%201", "1%20t%201", "1:x%20t%201":
        yield f"/index/city?is=1&after={after}", [], 400, '{"refused":33,"name":"BadBody"}'
    for query in "since=0", "since=" + "0" * 63, "since=" + "g" * 64, "wait=61", "wait=x", "wait=-1":
        yield f"/changes?{query}", [], 400, '{"refused":33,"name":"BadBody"}'
    # of a list of writes with another line nothing is done
    for line in "", "{}", "[]", '{"key":"n"}', '{"key":1,"document":{}}', '{"key":"n","document":{},"more":1}', '{"key":"n",', b'{"key":"\xff"}':
        first = b'{"key":"n","document":{}}\n'
        yield "/keys", post(first + (line if isinstance(line, bytes) else line.encode()) + b"\n"), 400, '{"refused":33,"name":"BadBody","line":2}'
    yield "/keys?prefix=n", [], 200, '{"keys":[]}'
    # what is not there, and what cannot be asked so
    for path in "/none", "/keysx", "/views/visits", "/views/visits/none", "/root/", "/index":
        yield path, [], 404, '{"refused":0,"name":"NotFound"}'
    for method in "POST", "PATCH", "OPTIONS", "TRACE", "BREW":
        yield "/keys/t", ["-X", method], 405, '{"refused":0,"name":"MethodNotAllowed"}'
    for method in "PUT", "POST", "DELETE":
        for path in "/root", "/metrics", "/", "/tree", "/conflicts", "/changes", "/index/city?is=1", "/views/visits/rows":
            yield path, ["-X", method], 405, '{"refused":0,"name":"MethodNotAllowed"}'
    for method in "PUT", "DELETE":
        yield "/keys", ["-X", method], 405, '{"refused":0,"name":"MethodNotAllowed"}'
    yield "/keys/t", delete("1:1"), 204, ""
    yield "/keys/t", [], 404, '"context":"1:1"'
