import jason.asSyntax.*;
import jason.environment.*;

/** A town of streets with parcels. */
public class TownEnv extends Environment {

    public static final Literal open = Literal.parseLiteral("open(depot)");
    private int size;

    @Override
    public void init(String[] args) {
        size = Integer.parseInt(args[0]);
        addPercept(open);
        addPercept(Literal.parseLiteral("size(" + size + ")"));
    }

    @Override
    public boolean executeAction(String ag, Structure act) {
        if (act.getFunctor().equals("drive")) {
            return inTown(act);
        } else if (act.getFunctor().equals("load")) {
            addPercept(ag, Literal.parseLiteral("holding(" + act.getTerm(0) + ")"));
            return true;
        } else if (act.getFunctor().equals("unload")) {
            removePercept(ag, Literal.parseLiteral("holding(" + act.getTerm(0) + ")"));
            return true;
        }
        return false;
    }

    private boolean inTown(Structure act) {
        return true;
    }
}
