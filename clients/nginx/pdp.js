// An enforcement point for nginx: njs asks Dalvezour before a request goes on to the server that is protected.
// Deny-biased: a request goes on only if the decision is Permit and all its obligations were carried out.
// `pdp-nginx write` makes map.js of the mapping file, and the configuration that calls `guard`. (Not by auth_request:
// nginx lets a script ask over kept connections only for the request itself, and not for the one that that makes.)
import fs from 'fs';
import map from 'map.js';

const URN = 'urn:oasis:names:tc:xacml:1.0:';
const STRING = 'http://www.w3.org/2001/XMLSchema#string';
// A refusal, with the status that says so.
function refusal(status, why) {
    const held = new Error(why);
    held.status = status;
    return held;
}

// What may stand in a path once it is decoded.
const PLAIN = new RegExp('^[' + map.Plain + ']+$');

// The path as every server reads it; 400 if two could read it differently: empty parts, dots, parameters, a backslash,
// a character of ASCII that is encoded (but for a space), what isn't UTF-8, or another character than those above; 500
// if nginx would pass another one on, since a `rewrite` changed it.
function path_of(r) {
    const raw = r.variables.request_uri.split('?')[0];
    if (!/^\/(?:[A-Za-z0-9\-._~!$&'()*+,=:@]|%20|%[89A-Fa-f][0-9A-Fa-f]|\/)*$/.test(raw)) {
        throw refusal(400, 'a character in the path that isn\'t plain');
    }
    if (/\/\//.test(raw) || /\/\.{1,2}(?:\/|$)/.test(raw)) {
        throw refusal(400, 'an empty part or dots in the path');
    }
    let path;
    try {
        path = decodeURIComponent(raw);
    } catch (e) {
        throw refusal(400, 'a path that isn\'t UTF-8');
    }
    if (!PLAIN.test(path)) {
        throw refusal(400, 'a character in the path that isn\'t plain');
    }
    if (r.uri !== path) {
        throw refusal(500, 'a path that the configuration of nginx rewrites');
    }
    return path;
}

// The values of a field, each time that it stands in the head.
function fields(r, name) {
    return r.rawHeadersIn.filter(each => each[0].toLowerCase() === name.toLowerCase()).map(each => each[1]);
}

// Who asks: by the field of a proxy that the mapping file names, else by the certificate that was verified.
function subject_of(r) {
    const from = map.Subject;
    const verified = r.variables.ssl_client_verify === 'SUCCESS' ? r.variables.ssl_client_s_dn : '';
    if (from.Header && (from.FromAddress.includes(r.remoteAddress)
            || verified && from.FromCertificate.includes(verified))) {
        const held = fields(r, from.Header);
        if (held.length !== 1 || !/^[\x21-\x7e](?:[\x20-\x7e]*[\x21-\x7e])?$/.test(held[0])) {
            throw refusal(held.length ? 400 : 403, 'not one subject from the proxy');
        }
        return held[0];
    }
    if (from.Certificate && verified) {
        return verified;
    }
    throw refusal(403, 'nobody who is known');
}

function category(id, value, more) {
    const all = [[URN + id, value]].concat(Object.keys(more).map(name => [name, more[name]]));
    return {Attribute: all.map(each => ({AttributeId: each[0], DataType: STRING, Value: each[1]}))};
}

// A field of a form that is written as a query, and the head of a part of a form, which name another method.
const FIELD_NAMES_METHOD = new RegExp(map.FieldNamesMethod, 'i');
const PART_NAMES_METHOD = new RegExp(map.PartNamesMethod, 'i');

// Refuses a form that names another method, or may do so for some reader, and one that isn't in memory.
function refuse_form(r) {
    const kind = fields(r, 'Content-Type').join(';');
    if (!map.Forms || !/^\s*(?:;|$)|form|url|multipart/i.test(kind)) {
        return;
    }
    let body;
    try {
        body = r.requestBuffer;
    } catch (e) {  // nginx has it in a file
        throw refusal(413, 'a form of more than a MiB');
    }
    if (!body || !body.length) {  // (one of no bytes can't be read)
        return;
    }
    const form = body.toString();
    if (/charset(?!\s*=\s*"?utf-8"?\s*(?:;|$))/i.test(kind) || fields(r, 'Content-Encoding').length
            || (/multipart/i.test(kind) ? parts_name_method(form) : FIELD_NAMES_METHOD.test(form))) {
        throw refusal(400, 'another method in a form');
    }
}

// Whether the head of a part names another method, or may do so for some reader. One whose line goes on in the next
// one, or is as long as this, does: no browser sends one.
function parts_name_method(form) {
    const lower = form.toLowerCase();
    let at = lower.indexOf('content-disposition');
    for (let count = 0; at >= 0; count++) {
        const head = lower.slice(at, at + 2000).match(/^[^\r\n]*(?:\r\n|\r|\n)?[ \t]?/)[0];
        if (count > 1000) {
            throw refusal(413, 'a form of more than 1,000 parts');
        }
        if (head.length === 2000 || /[\r\n][ \t]$/.test(head) || PART_NAMES_METHOD.test(head.replace(/\\/g, ''))) {
            return true;
        }
        at = lower.indexOf('content-disposition', at + head.length);
    }
    return false;
}

// Whether a query names another method, as `_method=`, `a[_method]=` or `X-HTTP-Method-Override=` in some encoding.
function names_method(query) {
    const decoded = query.replace(/%(?:u00)?([0-9a-f]{2})/gi, (_, digits) => String.fromCharCode(parseInt(digits, 16)));
    return /(?:^|[&;?[])[\s+]*(?:[_. +]|x[-_. +](?:http[-_. +])?)method/i.test(decoded);
}

// Refuses a field whose name a server may read as another one, as SCRIPT_NAME or X_User.
function refuse_odd_names(r) {
    if (r.rawHeadersIn.some(each => !/^[A-Za-z0-9-]+$/.test(each[0]))) {
        throw refusal(400, 'a field whose name has other characters than letters, digits and dashes');
    }
}

// The request for the decision.
function question(r, subject) {
    const odd = map.Refused.filter(name => fields(r, name).length > 0);
    // (a configuration may set other `args` than came, and either may go on)
    const query = (r.variables.args || '') + r.variables.request_uri.replace(/^[^?]*/, '');
    if (odd.length || names_method(query) || r.httpVersion < '1.0') {
        throw refusal(400, 'another method, path or protocol in a field or the query');
    }
    const action = Object.keys(map.Action).includes(r.method) ? map.Action[r.method] : null;
    if (!action) {
        throw refusal(403, 'a method that the mapping file doesn\'t name');
    }
    return JSON.stringify({Request: {
        AccessSubject: category('subject:subject-id', subject, {}),
        Resource: category('resource:resource-id', path_of(r), map.Resource),
        Action: category('action:action-id', action, {})
    }});
}

// The obligations of a Permit; a refusal for all else.
function permitted(reply) {
    if (reply.status !== 200) {
        throw refusal(503, 'the server answers with ' + reply.status);
    }
    const length = reply.headersOut['Content-Length'];
    if (length === undefined || Number(length) !== reply.responseBuffer.length) {
        throw refusal(503, 'a response that isn\'t whole');
    }
    let results;
    try {
        results = JSON.parse(reply.responseText).Response;
    } catch (e) {
        throw refusal(503, 'a response that isn\'t whole');
    }
    // (of two members of one name the reader takes the last)
    const names = reply.responseText.match(/"(?:Response|Decision)"\s*:/g) || [];
    if (!Array.isArray(results) || results.length !== 1 || typeof results[0] !== 'object' || !results[0]
            || names.length > 2) {
        throw refusal(503, 'not one result');
    }
    if (results[0].Decision !== 'Permit') {
        throw refusal(403, 'the decision is ' + String(results[0].Decision).slice(0, 20));
    }
    const held = results[0].Obligations === undefined ? [] : results[0].Obligations;
    if (!Array.isArray(held)) {
        throw refusal(503, 'obligations that are none');
    }
    return held;
}

// The values that an obligation gives an attribute, or all that it gives.
function values(obligation, attribute) {
    return (obligation.AttributeAssignment || []).filter(each => !attribute || each.AttributeId === attribute)
        .map(each => String(each.Value));
}

// What an obligation gives.
function given(obligation) {
    return (obligation.AttributeAssignment || []).map(each => ({AttributeId: String(each.AttributeId),
        Value: String(each.Value)}));
}

// Carries an obligation out: a line in a file, or a field of the reply, which a variable brings there.
function carry_out(r, obligation, subject) {
    const how = map.Obligations[obligation.Id];
    if (how.Log) {
        fs.appendFileSync(how.Log, JSON.stringify({Obligation: obligation.Id, Subject: subject, Method: r.method,
            Path: r.variables.request_uri.split('?')[0], At: new Date().toISOString(),
            Given: given(obligation)}) + '\n');
        return;
    }
    const value = values(obligation, how.Value).join(', ');
    if (!/^[\x20-\x7e]{1,1000}$/.test(value)) {
        throw refusal(503, 'an obligation without a value for its field');
    }
    r.variables[how.Variable] = value;
}

// Lets a request through, once its obligations are carried out.
function let_through(r, subject, obligations) {
    if (!obligations.every(each => each && Object.keys(map.Obligations).includes(each.Id))) {
        throw refusal(403, 'an obligation that isn\'t understood');
    }
    obligations.forEach(each => carry_out(r, each, subject));
    r.variables.pdp_subject = subject;
    r.internalRedirect('@pdp-protected');
}

function refuse(r, fault) {
    r.warn('pdp: refused: ' + fault.message);
    r.return(fault.status || 503);
}

function ask(r, body) {
    return r.subrequest('/pdp-decision', {method: 'POST', body: body, args: ''});
}

// A decision changes nothing: it is asked for once more if its connection ended before a byte of a reply, as one does
// that `pdpd listen` lets give way. By `then`, since njs 0.7.9 ends its worker at an `await` among the arguments of a
// call.
function guard(r) {
    try {
        refuse_odd_names(r);
        const subject = subject_of(r);
        const body = question(r, subject);
        refuse_form(r);
        ask(r, body)
            .then(reply => reply.status === 502 && reply.variables.upstream_bytes_received === '0'
                ? ask(r, body) : reply)
            .then(reply => let_through(r, subject, permitted(reply)))
            .catch(fault => refuse(r, fault));
    } catch (fault) {
        refuse(r, fault);
    }
}

export default {guard};
