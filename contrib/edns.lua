-- Removes the OPT record (EDNS) from a query before the server gets it, so that the reply is not FORMERR. Since the reply has no
-- OPT record, a resolver learns that there is no EDNS here, and need not ask again. For dnsdist with LuaJIT, such as Debian's.
local ffi = require("ffi")
local C = ffi.C

-- The offset of the first octet after the question, for a message `p` of `n` octets with one question; otherwise nil.
local function after_question(p, n)
    if n < 12 or p[4] ~= 0 or p[5] ~= 1 then return nil end
    local at = 12
    while at < n and p[at] ~= 0 do
        if p[at] > 63 then return nil end
        at = at + p[at] + 1
    end
    if at + 5 > n then return nil end
    return at + 5
end

-- Whether all that follows from `at` on is one OPT record of version 0, with the root as its owner, up to the message's end.
local function is_opt(p, n, at)
    return p[6] + p[7] + p[8] + p[9] + p[10] == 0 and p[11] == 1 and at + 11 <= n
        and p[at] == 0 and p[at + 1] == 0 and p[at + 2] == 41 and p[at + 6] == 0
        and at + 11 + p[at + 9] * 256 + p[at + 10] == n
end

function takeEDNS(dq)
    local n = tonumber(C.dnsdist_ffi_dnsquestion_get_len(dq))
    local p = ffi.cast("uint8_t*", C.dnsdist_ffi_dnsquestion_get_header(dq))
    local at = after_question(p, n)
    if at and is_opt(p, n, at) then
        p[11] = 0
        C.dnsdist_ffi_dnsquestion_set_len(dq, at)
    end
    return DNSAction.None
end

addAction(EDNSVersionRule(0), ERCodeAction(DNSRCode.BADVERS))
addAction(AllRule(), LuaFFIAction(takeEDNS))
