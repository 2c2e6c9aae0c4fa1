import Graphics.Element exposing (..)
port p : Signal Int
main = Signal.map show p
