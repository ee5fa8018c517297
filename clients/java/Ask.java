// Asks Dalvezour for one decision, with Java from 11 and nothing but its own HTTP client.
//
//     DALVEZOUR_TOKEN=ward-asks-1 java Ask.java http://127.0.0.1:8080 ward alice record-42 read
//
// Prints `granted` and ends with status 0, or says why not and ends with 1. Deny-biased: it knows no obligation, so it
// grants access only for the very bytes of a Permit that has none.
import java.io.IOException;
import java.net.URI;
import java.net.http.HttpClient;
import java.net.http.HttpRequest;
import java.net.http.HttpResponse;
import java.nio.ByteBuffer;
import java.nio.CharBuffer;
import java.nio.charset.CharacterCodingException;
import java.nio.charset.StandardCharsets;
import java.time.Duration;
import java.util.concurrent.TimeUnit;

public final class Ask {
    private static final String XACML = "urn:oasis:names:tc:xacml:1.0:";
    private static final String PERMIT = "{\"Response\":[{\"Decision\":\"Permit\",\"Status\":{\"StatusCode\":{\"Value\":\""
        + XACML + "status:ok\"}}}]}";

    private final HttpClient client = HttpClient.newBuilder().version(HttpClient.Version.HTTP_1_1)
        .followRedirects(HttpClient.Redirect.NEVER).connectTimeout(Duration.ofSeconds(5)).build();
    private final URI pdp;
    private final String token;

    Ask(String server, String domain, String token) {
        this.pdp = URI.create(server + "/domains/" + domain + "/pdp");
        this.token = token;
    }

    /** A text as JSON. */
    private static String quoted(String text) {
        StringBuilder out = new StringBuilder("\"");
        for (char each : text.toCharArray()) {
            out.append(each < ' ' || each == '"' || each == '\\' ? String.format("\\u%04x", (int) each) : each);
        }
        return out.append('"').toString();
    }

    /** A category with its id. */
    private static String category(String name, String id, String value) {
        return quoted(name) + ":{\"Attribute\":[{\"AttributeId\":" + quoted(XACML + id) + ",\"DataType\":"
            + "\"http://www.w3.org/2001/XMLSchema#string\",\"Value\":" + quoted(value) + "}]}";
    }

    /** Bytes of UTF-8; half of a pair of surrogates is refused, since it would become a question mark. */
    private static byte[] bytes(String text) throws CharacterCodingException {
        ByteBuffer made = StandardCharsets.UTF_8.newEncoder().encode(CharBuffer.wrap(text));
        byte[] held = new byte[made.remaining()];
        made.get(held);
        return held;
    }

    /** Empty if access is granted, else why not. */
    String refusal(String subject, String resource, String action) throws Exception {
        byte[] body = bytes("{\"Request\":{" + category("AccessSubject", "subject:subject-id", subject) + ","
            + category("Resource", "resource:resource-id", resource) + ","
            + category("Action", "action:action-id", action) + "}}");
        HttpRequest request = HttpRequest.newBuilder(pdp).header("Authorization", "Bearer " + token)
            .header("Content-Type", "application/xacml+json").timeout(Duration.ofSeconds(10))
            .POST(HttpRequest.BodyPublishers.ofByteArray(body)).build();
        HttpResponse<String> reply = client.sendAsync(request, HttpResponse.BodyHandlers.ofString())
            .get(10, TimeUnit.SECONDS);  // up to the last byte
        return reply.statusCode() == 200 && reply.body().equals(PERMIT) ? "" : reply.statusCode() + " " + reply.body();
    }

    public static void main(String[] words) throws IOException {
        String why;
        try {
            why = new Ask(words[0], words[1], System.getenv("DALVEZOUR_TOKEN")).refusal(words[2], words[3], words[4]);
        } catch (Exception fault) {
            why = "no decision: " + fault;
        }
        System.out.println(why.isEmpty() ? "granted" : "refused: " + why);
        System.exit(why.isEmpty() ? 0 : 1);
    }
}
