import jakarta.servlet.http.HttpServlet;
import jakarta.servlet.http.HttpServletRequest;
import jakarta.servlet.http.HttpServletResponse;
import java.io.IOException;
import java.nio.file.Files;
import java.nio.file.Path;
import org.apache.catalina.Context;
import org.apache.catalina.startup.Tomcat;
import org.apache.tomcat.util.descriptor.web.FilterDef;
import org.apache.tomcat.util.descriptor.web.FilterMap;
import org.odfilter.Filter;
import org.odfilter.Schema;

/**
 * A service in Tomcat that checks each $filter: `Server SCHEMA TYPE PORT`. It answers a request by the query that
 * reaches its servlet, and by the paths that the filter reads.
 */
public final class Server {
    private static final long MOST_NODES = 100;

    private Server() {
    }

    private static final class Answers extends HttpServlet {
        private static final long serialVersionUID = 1L;

        @Override
        protected void doGet(HttpServletRequest request, HttpServletResponse response) throws IOException {
            Filter filter = (Filter) request.getAttribute(CheckedFilter.FILTER);
            String query = request.getQueryString() == null ? "" : request.getQueryString();
            response.setContentType("text/plain");
            response.getWriter().write(
                    query + "\n" + (filter == null ? "" : String.join(" ", filter.propertyPaths())) + "\n");
        }
    }

    public static void main(String[] words) throws Exception {
        Schema schema = Schema.read(Files.readAllBytes(Path.of(words[0])));
        Tomcat tomcat = new Tomcat();
        tomcat.setBaseDir(Files.createTempDirectory("tomcat").toString());
        tomcat.setHostname("127.0.0.1");
        tomcat.setPort(Integer.parseInt(words[2]));
        tomcat.getConnector().setProperty("address", "127.0.0.1");
        tomcat.getConnector().setProperty("relaxedQueryChars", "[]{}|\\^`\"<>");
        Context context = tomcat.addContext("", null);
        FilterDef definition = new FilterDef();
        definition.setFilterName("checked");
        definition.setFilter(new CheckedFilter(schema.type(words[1]), MOST_NODES));
        context.addFilterDef(definition);
        FilterMap map = new FilterMap();
        map.setFilterName("checked");
        map.addURLPattern("/*");
        context.addFilterMap(map);
        Tomcat.addServlet(context, "answers", new Answers()).addMapping("/");
        tomcat.start();
        System.out.println("http://127.0.0.1:" + tomcat.getConnector().getLocalPort());
        tomcat.getServer().await();
    }
}
