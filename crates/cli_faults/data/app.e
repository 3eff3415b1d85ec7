class APP
create make
feature
  make
    do
      run (Void)
    end
  run (x: detachable A)
    do
      x.put (Void)
    end
end
