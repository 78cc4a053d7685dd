# The sources that the rows of refusals put a piece of code into.
source_of() { # PLACE CODE
  case $1 in
    first) printf '%s\nclass Main {\n  public static void main(String[] args) {\n  }\n}\n' "$2" ;;
    class) printf 'class Main {\n  %s\n  public static void main(String[] args) {\n  }\n}\n' "$2" ;;
    main) printf 'class Main {\n  public static void main(String[] args) {\n    %s\n  }\n}\n' "$2" ;;
  esac
}
